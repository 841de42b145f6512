# Completion of nugwier for fish: commands, options and files.
set -l commands list symbols needed exports build-id plan check harden address tree bindings starts
complete -c nugwier -n "not __fish_seen_subcommand_from $commands" -f
complete -c nugwier -n "not __fish_seen_subcommand_from $commands" -a list -d "headers, tables and contents"
complete -c nugwier -n "not __fish_seen_subcommand_from $commands" -a symbols -d "symbols, as nm lists them"
complete -c nugwier -n "not __fish_seen_subcommand_from $commands" -a needed -d "needed libraries"
complete -c nugwier -n "not __fish_seen_subcommand_from $commands" -a exports -d "defined functions and data"
complete -c nugwier -n "not __fish_seen_subcommand_from $commands" -a build-id -d "build id"
complete -c nugwier -n "not __fish_seen_subcommand_from $commands" -a plan -d "what a loader maps"
complete -c nugwier -n "not __fish_seen_subcommand_from $commands" -a check -d "whether a file is sound"
complete -c nugwier -n "not __fish_seen_subcommand_from $commands" -a harden -d "how a file is hardened"
complete -c nugwier -n "not __fish_seen_subcommand_from $commands" -a address -d "symbols at addresses"
complete -c nugwier -n "not __fish_seen_subcommand_from $commands" -a tree -d "libraries that a program loads"
complete -c nugwier -n "not __fish_seen_subcommand_from $commands" -a bindings -d "what symbols bind to"
complete -c nugwier -n "not __fish_seen_subcommand_from $commands" -a starts -d "whether a program starts"
complete -c nugwier -n "not __fish_seen_subcommand_from $commands" -a help -d "how a command is called"
complete -c nugwier -n "__fish_seen_subcommand_from help" -f -a "$commands"
complete -c nugwier -n "not __fish_seen_subcommand_from $commands" -s V -l version -d "the version"
complete -c nugwier -l help -d "how it is called"
complete -c nugwier -n "__fish_seen_subcommand_from $commands" -l json -d "objects of JSON"
complete -c nugwier -n "__fish_seen_subcommand_from $commands" -l color -x -a "always never" -d "bold headings and cyan names"
complete -c nugwier -n "__fish_seen_subcommand_from $commands" -s R -l recursive -d "ELF files below folders"
complete -c nugwier -n "__fish_seen_subcommand_from $commands" -F
complete -c nugwier -n "__fish_seen_subcommand_from list" -s h -d "file header"
complete -c nugwier -n "__fish_seen_subcommand_from list" -s S -d sections
complete -c nugwier -n "__fish_seen_subcommand_from list" -s g -d "section groups"
complete -c nugwier -n "__fish_seen_subcommand_from list" -s l -d segments
complete -c nugwier -n "__fish_seen_subcommand_from list" -s s -d symbols
complete -c nugwier -n "__fish_seen_subcommand_from list" -s D -d "symbols for dynamic linking"
complete -c nugwier -n "__fish_seen_subcommand_from list" -s d -d "dynamic entries"
complete -c nugwier -n "__fish_seen_subcommand_from list" -s r -d relocations
complete -c nugwier -n "__fish_seen_subcommand_from list" -s n -d notes
complete -c nugwier -n "__fish_seen_subcommand_from list" -s V -d versions
complete -c nugwier -n "__fish_seen_subcommand_from list" -s I -d "chains of hash sections"
complete -c nugwier -n "__fish_seen_subcommand_from list" -s A -d "build attributes"
complete -c nugwier -n "__fish_seen_subcommand_from list" -s k -d "links to debug information"
complete -c nugwier -n "__fish_seen_subcommand_from list" -s a -d all
complete -c nugwier -n "__fish_seen_subcommand_from list" -s x -x -d "bytes of a section"
complete -c nugwier -n "__fish_seen_subcommand_from list" -s p -x -d "strings of a section"
complete -c nugwier -n "__fish_seen_subcommand_from list" -s W -l wide -d "wide rows"
complete -c nugwier -n "__fish_seen_subcommand_from symbols" -s D -l dynamic -d "those for dynamic linking"
complete -c nugwier -n "__fish_seen_subcommand_from symbols" -s g -l extern-only -d "those that other files can see"
complete -c nugwier -n "__fish_seen_subcommand_from symbols" -s u -l undefined-only -d "undefined ones"
complete -c nugwier -n "__fish_seen_subcommand_from symbols" -l defined-only -d "defined ones"
complete -c nugwier -n "__fish_seen_subcommand_from symbols" -s n -l numeric-sort -d "in the order of values"
complete -c nugwier -n "__fish_seen_subcommand_from symbols" -l size-sort -d "in the order of sizes"
complete -c nugwier -n "__fish_seen_subcommand_from symbols" -s p -l no-sort -d "in the order of the table"
complete -c nugwier -n "__fish_seen_subcommand_from symbols" -s S -l print-size -d "with sizes"
complete -c nugwier -n "__fish_seen_subcommand_from symbols" -s P -d "as POSIX has it"
complete -c nugwier -n "__fish_seen_subcommand_from symbols" -s f -l format -x -a "posix bsd" -d format
complete -c nugwier -n "__fish_seen_subcommand_from exports" -l functions -d "functions alone"
complete -c nugwier -n "__fish_seen_subcommand_from harden" -l require -x -a "pie relro bindnow nx wx canary fortify runpath ibt shstk bti pac stripped" -d "what a file must have"
complete -c nugwier -n "__fish_seen_subcommand_from tree bindings starts" -l search -x -a "(__fish_complete_directories)" -d "folder of libraries"
complete -c nugwier -n "__fish_seen_subcommand_from tree bindings starts" -l root -x -a "(__fish_complete_directories)" -d "folder of an image"
complete -c nugwier -n "__fish_seen_subcommand_from tree bindings starts" -l no-cache -d "without ld.so.cache"
