"""What a run of the prover over an edited crate says: why it refused the edit, or that it did not."""
import os
import subprocess

# the edit gives no program or no definition: nothing was asked of the prover
NOTHING = "no program"
# a goal that the proof no longer shows
FACT = "fact"
# nothing but text of the proof that no longer fits: an obligation that has gone, or has another shape
TEXT = "proof text"
# a program's printed lines no longer are what they must be; the prover accepts it, or was not asked (--run)
RUN = "printed lines"
ACCEPTED = "accepted"
LATE = "no verdict"

TOLD = os.path.join(os.path.dirname(os.path.dirname(os.path.abspath(__file__))), "verdict")


def of_run(status, output):
    """The verdict on a run, and the first error that made it: what tools/verdict says of a refusal."""
    if status == 0:
        return ACCEPTED, ""
    said = subprocess.run([TOLD], input=output, capture_output=True, text=True, check=True).stdout
    verdict, _, error = said.strip("\n").partition("\t")
    return verdict or LATE, error or output.strip()[-200:]
