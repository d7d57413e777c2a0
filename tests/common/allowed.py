"""How long what is tried at random may take."""
import os
import time


def end_after(seconds: float) -> float:
    """When a trial ends that may take so many seconds, or as many as TRIAL_SECONDS says."""
    return time.monotonic() + float(os.environ.get("TRIAL_SECONDS", seconds))
