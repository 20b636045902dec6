"""How a script ends where what it prints isn't taken, as by `head`, or on a full disk, and where it is interrupted.

What the scripts of this folder share; it is no program. Nothing of it is proved.
"""
import os, signal, sys


def ended(main, status=3):
    """Runs a script's main; where the system fails it, ends by one line on standard error and this status. An interrupt
    (Ctrl-C) ends it as any program, once what it holds is let go of."""
    try:
        try:
            main()
        finally:
            sys.stdout.flush()
    except OSError as fault:
        # What is still to be printed goes nowhere, or Python tries once more, and tells.
        os.dup2(os.open(os.devnull, os.O_WRONLY), sys.stdout.fileno())
        told = "cannot write output" if isinstance(fault, BrokenPipeError) else f"failed: {fault}"
        print(f"{os.path.basename(sys.argv[0])}: {told}", file=sys.stderr)
        sys.exit(status)
    except KeyboardInterrupt:
        signal.signal(signal.SIGINT, signal.SIG_DFL)
        os.kill(os.getpid(), signal.SIGINT)
