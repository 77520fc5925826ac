# Gives a manual page the names under which the tools are installed, as nfs3\-from\-pcap: in its head, where it is about the tool itself,
# where it names other pages, and in the commands of examples. TOOLS stands for the names of the tools.
/^\.EX/,/^\.EE/ {
  s#(^|\| )(tools/)?(TOOLS) #\1nfs3\\-\3 #g
  s#tools/(TOOLS) #nfs3\\-\1 #g
}
/^\.EX/,/^\.EE/! {
  s#^\.TH (.*) 1 ""#.TH NFS3\\-\1 1 ""#
  s#^((\.BR? |\.I )?)(tools/)?(TOOLS)( \(1\)| \\-|$)#\1nfs3\\-\4\5#
}
s#^\.TH NFS3\\-(NFS3)#.TH \1#
s#(nfs3\\-from|NFS3\\-FROM)_#\1\\-#g
