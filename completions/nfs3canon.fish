# Completion of nfs3canon for fish. Copy it to ~/.config/fish/completions/.
function __nfs3canon_words
    count (commandline -opc)
end

complete -c nfs3canon -f
complete -c nfs3canon -n '__fish_use_subcommand' -a check -d 'Check that every message is valid, and count them'
complete -c nfs3canon -n '__fish_use_subcommand' -a show -d 'Print one line for each message, with all its fields'
complete -c nfs3canon -n '__fish_use_subcommand' -a canon -d 'Write the canonical form of a capture'
complete -c nfs3canon -n '__fish_use_subcommand' -a same -d 'Compare two captures, ignoring xids, handles and write verifiers'
complete -c nfs3canon -n '__fish_use_subcommand' -a pack -d 'Make a capture from the byte streams of TCP connections'
complete -c nfs3canon -n '__fish_use_subcommand' -a help -d 'Print help'
complete -c nfs3canon -n '__fish_use_subcommand' -l help -d 'Print help'
complete -c nfs3canon -n '__fish_use_subcommand' -l version -d 'Print the version'
complete -c nfs3canon -n '__fish_seen_subcommand_from help' -a 'check show canon same pack'
complete -c nfs3canon -n '__fish_seen_subcommand_from check show; and test (__nfs3canon_words) -lt 3' -F
complete -c nfs3canon -n '__fish_seen_subcommand_from canon same; and test (__nfs3canon_words) -lt 4' -F
complete -c nfs3canon -n '__fish_seen_subcommand_from pack' -F

# The tools. What follows is made by dev/completions.
for tool in calls nfs3-calls
    complete -c $tool -s h -l help -d 'show this help message and exit'
    complete -c $tool -l version -d 'show programs version number and exit'
    complete -c $tool -l errors -d 'lists calls whose reply is no success, or that got none'
    complete -c $tool -l no-reply -d 'lists calls that got no reply, or one on a later connection alone'
    complete -c $tool -l slow -x -d 'lists calls with at least this latency, as 100ms, or that waited as long'
    complete -c $tool -l procedure -x -d 'lists calls of these procedures'
    complete -c $tool -l path -x -d 'lists calls whose path fits a pattern'
    complete -c $tool -l user -x -d 'lists calls of this user by AUTH_SYS'
    complete -c $tool -l client -x -d 'lists calls of the client with this address'
    complete -c $tool -l who -d 'prints the user and the client of each call'
    complete -c $tool -l sort -x -a 'time latency' -d 'the order of the lines'
    complete -c $tool -l json -d 'prints JSON'
    complete -c $tool -l csv -d 'prints comma-separated values'
    complete -c $tool -l utc -d 'prints the time of day (UTC) of each call'
    complete -c $tool -l from -x -d 'takes calls from a time on'
    complete -c $tool -l to -x -d 'takes calls up to a time'
    complete -c $tool -l color -x -a 'auto always never' -d 'whether there are colours'
    complete -c $tool -l program -r -d 'the nfs3canon to run, if it is not the one of this folder'
    complete -c $tool -l port -x -d 'takes the connections that have one of these ports'
    complete -c $tool -l allow-losses -d 'takes in part and left out as the status 0'
    complete -c $tool -l allow-not-checked -d 'takes not checked as the status 0'
end
for tool in nfs3-compare
    complete -c $tool -s h -l help -d 'show this help message and exit'
    complete -c $tool -l version -d 'show programs version number and exit'
    complete -c $tool -l mask -x -a '(__fish_append , none times stamps machines space ids fsids cookies cookieverfs createverfs owners wcc sillynames raw)' -d 'the classes of values to mask'
    complete -c $tool -l order -x -a 'strict any' -d 'whether the order of calls counts'
    complete -c $tool -l extra -x -a 'asking none' -d 'what is left out in any order if one run alone has it'
    complete -c $tool -l known -r -d 'takes the known findings of a file, which do not count'
    complete -c $tool -l known-new -r -d 'writes a file in which all findings are known'
    complete -c $tool -l all -d 'prints each finding by itself'
    complete -c $tool -l brief -d 'prints a line for each finding'
    complete -c $tool -l html -r -d 'writes a page for a browser with what differs and the calls around it'
    complete -c $tool -l json -r -d 'writes the verdict and all findings as JSON'
    complete -c $tool -l junit -r -d 'writes the verdict and the findings as JUnit XML'
    complete -c $tool -l color -x -a 'auto always never' -d 'whether there are colours'
    complete -c $tool -l program -r -d 'the nfs3canon to run, if it is not the one of this folder'
    complete -c $tool -l port -x -d 'takes the connections that have one of these ports'
    complete -c $tool -l allow-losses -d 'takes in part and left out as the status 0'
    complete -c $tool -l allow-not-checked -d 'takes not checked as the status 0'
end
for tool in nfs3-cut
    complete -c $tool -s h -l help -d 'show this help message and exit'
    complete -c $tool -l version -d 'show programs version number and exit'
    complete -c $tool -l origins -d 'takes the exchanges too that gave the file handles'
    complete -c $tool -l program -r -d 'the nfs3canon to run, if it is not the one of this folder'
    complete -c $tool -l port -x -d 'takes the connections that have one of these ports'
end
for tool in nfs3-explain
    complete -c $tool -s h -l help -d 'show this help message and exit'
    complete -c $tool -l version -d 'show programs version number and exit'
    complete -c $tool -l port -x -d 'takes the connections that have one of these ports'
end
for tool in from_pcap nfs3-from-pcap
    complete -c $tool -s h -l help -d 'show this help message and exit'
    complete -c $tool -l version -d 'show programs version number and exit'
    complete -c $tool -l port -x -d 'takes the connections that have one of these ports'
end
for tool in nfs3-meaning
    complete -c $tool -s h -l help -d 'show this help message and exit'
    complete -c $tool -l version -d 'show programs version number and exit'
    complete -c $tool -l all -d 'lists each finding'
    complete -c $tool -l rule -x -a '(__fish_append , read-data read-eof read-past-end read-count-data read-count-asked write-size write-committed write-count-asked write-count-data write-nothing verifier verifier-back not-committed listing name-gone name-there name-object readlink-text link-nlink handle-object same-ctime returns wcc-before set-attributes made-attributes made-type guard entries-size entries-none entry-cookies entry-names entry-fileid mode-bits nsec write-ctime dir-type access-asked fsinfo)' -d 'finds only what breaks these rules'
    complete -c $tool -l notes -d 'prints notes as well'
    complete -c $tool -l explain -x -d 'says what a rule is, and what may be the cause'
    complete -c $tool -l known -r -d 'takes the known findings of a file, which do not count'
    complete -c $tool -l known-new -r -d 'writes a file in which all findings are known'
    complete -c $tool -l junit -r -d 'writes JUnit XML'
    complete -c $tool -l html -r -d 'writes a page for a browser'
    complete -c $tool -l json -d 'prints JSON'
    complete -c $tool -l csv -d 'prints comma-separated values'
    complete -c $tool -l color -x -a 'auto always never' -d 'whether there are colours'
    complete -c $tool -l program -r -d 'the nfs3canon to run, if it is not the one of this folder'
    complete -c $tool -l port -x -d 'takes the connections that have one of these ports'
    complete -c $tool -l allow-losses -d 'takes in part and left out as the status 0'
    complete -c $tool -l allow-not-checked -d 'takes not checked as the status 0'
end
for tool in procedures nfs3-procedures
    complete -c $tool -s h -l help -d 'show this help message and exit'
    complete -c $tool -l version -d 'show programs version number and exit'
    complete -c $tool -l beside -d 'prints two recordings side by side, with what changed'
    complete -c $tool -l by -x -a 'procedure user client path' -d 'what has a row'
    complete -c $tool -l total -d 'prints no tables of connections'
    complete -c $tool -l sort -x -a 'procedure calls again replies no-reply call-bytes reply-bytes median p99 most mean sum errors slower' -d 'has the largest of a column first'
    complete -c $tool -l json -r -d 'writes the verdicts and the tables as JSON'
    complete -c $tool -l csv -r -d 'writes the tables as comma-separated values'
    complete -c $tool -l html -r -d 'writes a page for a browser, with the tables and latencies'
    complete -c $tool -l from -x -d 'takes calls from a time on'
    complete -c $tool -l to -x -d 'takes calls up to a time'
    complete -c $tool -l width -x -d 'cuts the lines of tables at N columns, 0 for none'
    complete -c $tool -l color -x -a 'auto always never' -d 'whether there are colours'
    complete -c $tool -l program -r -d 'the nfs3canon to run, if it is not the one of this folder'
    complete -c $tool -l port -x -d 'takes the connections that have one of these ports'
    complete -c $tool -l allow-losses -d 'takes in part and left out as the status 0'
    complete -c $tool -l allow-not-checked -d 'takes not checked as the status 0'
end
for tool in nfs3-report
    complete -c $tool -s h -l help -d 'show this help message and exit'
    complete -c $tool -l version -d 'show programs version number and exit'
    complete -c $tool -l html -r -d 'writes a page for a browser'
    complete -c $tool -l color -x -a 'auto always never' -d 'whether there are colours'
    complete -c $tool -l program -r -d 'the nfs3canon to run, if it is not the one of this folder'
    complete -c $tool -l port -x -d 'takes the connections that have one of these ports'
    complete -c $tool -l allow-losses -d 'takes in part and left out as the status 0'
    complete -c $tool -l allow-not-checked -d 'takes not checked as the status 0'
end
for tool in verdicts nfs3-verdicts
    complete -c $tool -s h -l help -d 'show this help message and exit'
    complete -c $tool -l version -d 'show programs version number and exit'
    complete -c $tool -s q -l quiet -d 'prints no row of what is ok, and no heads'
    complete -c $tool -l junit -r -d 'writes the verdicts as JUnit XML'
    complete -c $tool -l json -r -d 'writes the verdicts as JSON'
    complete -c $tool -l html -r -d 'writes a page for a browser, with faults and latencies'
    complete -c $tool -s j -x -d 'judges N recordings at once'
    complete -c $tool -l growing -d 'takes a recording that ends inside a frame or a record as one that is still made'
    complete -c $tool -l known -r -d 'takes the known findings of a file, which do not count'
    complete -c $tool -l known-new -r -d 'writes a file in which all findings are known'
    complete -c $tool -l color -x -a 'auto always never' -d 'whether there are colours'
    complete -c $tool -l program -r -d 'the nfs3canon to run, if it is not the one of this folder'
    complete -c $tool -l port -x -d 'takes the connections that have one of these ports'
    complete -c $tool -l allow-losses -d 'takes in part and left out as the status 0'
    complete -c $tool -l allow-not-checked -d 'takes not checked as the status 0'
end
for tool in nfs3-where
    complete -c $tool -s h -l help -d 'show this help message and exit'
    complete -c $tool -l version -d 'show programs version number and exit'
    complete -c $tool -l port -x -d 'takes the connections that have one of these ports'
end
