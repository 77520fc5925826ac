"""What was asked and answered, by the lines of `nfs3canon show`. No other room reads these lines.

An exchange is a call, with its retransmissions and its replies. A retransmission is a call of the
same connection with the xid and all items of an earlier one.
"""
