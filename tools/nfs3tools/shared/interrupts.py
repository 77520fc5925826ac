"""Lets SIGINT end a tool at once while it starts. The import of this module, before all others,
does that; Python would print where it was."""
import signal

if signal.getsignal(signal.SIGINT) is signal.default_int_handler:
    signal.signal(signal.SIGINT, signal.SIG_DFL)
