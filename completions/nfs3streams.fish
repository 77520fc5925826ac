# Completion of nfs3streams for fish. Copy it to ~/.config/fish/completions/.
complete -c nfs3streams -F
complete -c nfs3streams -l index -d 'Write an index in place of a capture'
complete -c nfs3streams -l port -x -a '2049 20048 111' -d 'Choose the connections that use one of these ports'
complete -c nfs3streams -l help -d 'Print help'
complete -c nfs3streams -l version -d 'Print the version'
