"""What the scripts of this folder share: they run in a Python that may be another one than the tests', and tell on standard output
each test, a line of its name and of its faults."""
import json
import traceback


def tell(name, faults):
    """Tells one test, which passed where it has no faults."""
    print(json.dumps([name, [str(fault) for fault in faults]]), flush=True)


def attempt(name, test, *words):
    """Runs a test that gives its faults, and tells it. One that breaks off has failed."""
    try:
        faults = list(test(*words))
    except Exception:
        faults = traceback.format_exc().splitlines()
    tell(name, faults)


def raised(call, *words, **named):
    """What a call raises; None where it raises nothing."""
    try:
        call(*words, **named)
    except Exception as error:
        return error
    return None


def differs(what, got, wanted):
    """The fault that something isn't as wanted, if it is."""
    return [] if got == wanted else [f"{what}: {str(got)[:300]}, and not {str(wanted)[:300]}"]
