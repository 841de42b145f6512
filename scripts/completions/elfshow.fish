# Completion of elfshow for fish: the mode, the file, and calls.
complete -c elfshow -n "test (count (commandline -opc)) -eq 1" -f -a "bytes stream both"
complete -c elfshow -n "test (count (commandline -opc)) -eq 2" -F
complete -c elfshow -n "test (count (commandline -opc)) -ge 3" -f -a "header sections segments symbols dynsyms dynamic versions"
complete -c elfshow -n "test (count (commandline -opc)) -ge 3" -f -a "name= data= strings= rels= relas= notes= seg= segnotes= sysv= gnu="
