"""Makes a capture out of a recording of packets, as tcpdump and Wireshark write them.

    tools/from_pcap [--port PORT,..] RECORDING OUT

The manual page, tools/man/from_pcap.1, has the rest.

The status is 0 if OUT was written, 1 if no connection is taken, 2 if RECORDING or OUT is refused,
3 if a file or memory failed.
"""
from __future__ import annotations

import sys

from ..recordings.parts import files_of
from ..recordings.taken import NotTaken, take
from ..reporting.messages import (
    add_options, command_of, ended, options_of, parser_of, recording_lines)
from ..shared.outputs import CAPTURE, try_outputs
from ..shared.printed import escaped

NOTHING_TAKEN = 1


def main(words: list[str]) -> int:
    parser = parser_of(__doc__, 'from_pcap')
    parser.add_argument('recording', metavar='RECORDING')
    parser.add_argument('out', metavar='OUT')
    add_options(parser)
    chosen = parser.parse_args(words)
    try_outputs([chosen.out], files_of(chosen.recording), (CAPTURE,))
    with take(chosen.recording, options_of(chosen)) as taken:
        if not taken.is_recording:
            raise NotTaken(f'{escaped(chosen.recording)} is a capture already')
        for line in recording_lines(taken):
            print(line, file=sys.stderr)
        if not taken.connections:
            return ended('from_pcap', 'no connection to pack', NOTHING_TAKEN)
        taken.write_capture(chosen.out, [chosen.recording])
    return 0


command = command_of(__name__, 'from_pcap', main)
