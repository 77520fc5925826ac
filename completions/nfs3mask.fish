# Completion of nfs3mask for fish. Copy it to ~/.config/fish/completions/.
function __nfs3mask_words
    count (commandline -opc)
end

complete -c nfs3mask -f
complete -c nfs3mask -l help -d 'Print help'
complete -c nfs3mask -l version -d 'Print the version'
complete -c nfs3mask -n 'test (__nfs3mask_words) -lt 3' -F
for class in times stamps machines space ids fsids cookies cookieverfs createverfs owners wcc sillynames raw
    for way in keep zero number
        complete -c nfs3mask -n 'test (__nfs3mask_words) -ge 3' -a $class=$way
    end
end
