# Completion of alcrs for fish. ci/manual.py makes this file of samples/help.

# The command is the first word behind the program's name.
function __alcrs_has_no_command
    test (count (commandline -opc)) -lt 2
end

function __alcrs_command_is
    set -l words (commandline -opc)
    test (count $words) -gt 1; and test "$words[2]" = $argv[1]
end

complete -c alcrs -n __alcrs_has_no_command -f
complete -c alcrs -n __alcrs_has_no_command -s h -l help \
    -d 'Print help (see a summary with \'-h\')'
complete -c alcrs -n __alcrs_has_no_command -s V -l version \
    -d 'Print version'
complete -c alcrs -n __alcrs_has_no_command -a encode \
    -d 'Writes the session of an object: every encoding symbol of every block once'
complete -c alcrs -n __alcrs_has_no_command -a certify \
    -d 'Writes the certificate of an object, for the datagrams of a TSI and TOI'
complete -c alcrs -n __alcrs_has_no_command -a convert \
    -d 'Writes a certificate anew, as RSC2, for the datagrams of a TSI and TOI'
complete -c alcrs -n __alcrs_has_no_command -a check \
    -d 'Says whether a session carries an object, and how many datagrams may be missed'
complete -c alcrs -n __alcrs_has_no_command -a drop \
    -d 'Writes a session without the datagrams at some places'
complete -c alcrs -n __alcrs_has_no_command -a salvage \
    -d 'Writes a session up to the place where it is cut or broken'
complete -c alcrs -n __alcrs_has_no_command -a join \
    -d 'Writes the datagrams of several sessions as one session'
complete -c alcrs -n __alcrs_has_no_command -a decode \
    -d 'Writes the object that the datagrams of a session give'
complete -c alcrs -n __alcrs_has_no_command -a follow \
    -d 'Takes datagrams one by one, as they come, and writes the object once they give it'
complete -c alcrs -n __alcrs_has_no_command -a twin \
    -d 'Writes another object that fits the datagrams, if a block has too few symbols'
complete -c alcrs -n __alcrs_has_no_command -a show \
    -d 'Prints a line for each datagram of a session'
complete -c alcrs -n __alcrs_has_no_command -a help \
    -d 'Print this message or the help of the given subcommand(s)'

complete -c alcrs -n '__alcrs_command_is help' -f \
    -a 'encode certify convert check drop salvage join decode follow twin show help'

complete -c alcrs -n '__alcrs_command_is encode' -l tsi -x \
    -d 'The transport session identifier (TSI), 0 to 4294967295'
complete -c alcrs -n '__alcrs_command_is encode' -l toi -x \
    -d 'The transport object identifier (TOI), 0 to 4294967295'
complete -c alcrs -n '__alcrs_command_is encode' -l symbol -x \
    -d 'The length of an encoding symbol in bytes, 1 to 65475'
complete -c alcrs -n '__alcrs_command_is encode' -l block -x \
    -d 'The most source symbols of a block, 1 to 255'
complete -c alcrs -n '__alcrs_command_is encode' -l max -x \
    -d 'The most encoding symbols of a block, 1 to 255, and not below --block'
complete -c alcrs -n '__alcrs_command_is encode' -l fti-every -x \
    -d 'Every M-th datagram has the FTI, from the first on; 1 to 255'
complete -c alcrs -n '__alcrs_command_is encode' -l order -x -a 'blocks rounds' \
    -d 'The order of the symbols'
complete -c alcrs -n '__alcrs_command_is encode' -s n -l no-clobber \
    -d 'Keeps a file that is there under the name of OUT, and fails'
complete -c alcrs -n '__alcrs_command_is encode' -s q -l quiet \
    -d 'Leaves out the sentences on standard error'
complete -c alcrs -n '__alcrs_command_is encode' -s h -l help \
    -d 'Print help (see a summary with \'-h\')'

complete -c alcrs -n '__alcrs_command_is certify' -l tsi -x \
    -d 'The transport session identifier (TSI), 0 to 4294967295'
complete -c alcrs -n '__alcrs_command_is certify' -l toi -x \
    -d 'The transport object identifier (TOI), 0 to 4294967295'
complete -c alcrs -n '__alcrs_command_is certify' -l symbol -x \
    -d 'The length of an encoding symbol in bytes, 1 to 65475'
complete -c alcrs -n '__alcrs_command_is certify' -l block -x \
    -d 'The most source symbols of a block, 1 to 255'
complete -c alcrs -n '__alcrs_command_is certify' -l max -x \
    -d 'The most encoding symbols of a block, 1 to 255, and not below --block'
complete -c alcrs -n '__alcrs_command_is certify' -s n -l no-clobber \
    -d 'Keeps a file that is there under the name of OUT, and fails'
complete -c alcrs -n '__alcrs_command_is certify' -s q -l quiet \
    -d 'Leaves out the sentences on standard error'
complete -c alcrs -n '__alcrs_command_is certify' -s h -l help \
    -d 'Print help (see a summary with \'-h\')'

complete -c alcrs -n '__alcrs_command_is convert' -l tsi -x \
    -d 'The transport session identifier (TSI), 0 to 4294967295'
complete -c alcrs -n '__alcrs_command_is convert' -l toi -x \
    -d 'The transport object identifier (TOI), 0 to 4294967295'
complete -c alcrs -n '__alcrs_command_is convert' -s n -l no-clobber \
    -d 'Keeps a file that is there under the name of OUT, and fails'
complete -c alcrs -n '__alcrs_command_is convert' -s q -l quiet \
    -d 'Leaves out the sentences on standard error'
complete -c alcrs -n '__alcrs_command_is convert' -s h -l help \
    -d 'Print help (see a summary with \'-h\')'

complete -c alcrs -n '__alcrs_command_is check' -l tsi -x \
    -d 'The transport session identifier (TSI), 0 to 4294967295'
complete -c alcrs -n '__alcrs_command_is check' -l toi -x \
    -d 'The transport object identifier (TOI), 0 to 4294967295'
complete -c alcrs -n '__alcrs_command_is check' -l picture -r -F \
    -d 'The SVG file to draw a yes to: symbols to spare, bursts that may be missed'
complete -c alcrs -n '__alcrs_command_is check' -l summary \
    -d 'Prints few lines at a yes: the weakest block, not all blocks'
complete -c alcrs -n '__alcrs_command_is check' -l margin -r -F \
    -d 'Ends with status 3 at a yes if fewer than N datagrams may be missed'
complete -c alcrs -n '__alcrs_command_is check' -l burst -r -F \
    -d 'Ends with status 3 at a yes if fewer than N neighbouring datagrams may be missed'
complete -c alcrs -n '__alcrs_command_is check' -s n -l no-clobber \
    -d 'Keeps a file that is there under the name of OUT, and fails'
complete -c alcrs -n '__alcrs_command_is check' -s q -l quiet \
    -d 'Leaves out the sentences on standard error'
complete -c alcrs -n '__alcrs_command_is check' -s h -l help \
    -d 'Print help (see a summary with \'-h\')'

complete -c alcrs -n '__alcrs_command_is drop' -l places -r -F \
    -d 'A file of places to leave out, written as PLACE is'
complete -c alcrs -n '__alcrs_command_is drop' -s n -l no-clobber \
    -d 'Keeps a file that is there under the name of OUT, and fails'
complete -c alcrs -n '__alcrs_command_is drop' -s q -l quiet \
    -d 'Leaves out the sentences on standard error'
complete -c alcrs -n '__alcrs_command_is drop' -s h -l help \
    -d 'Print help (see a summary with \'-h\')'

complete -c alcrs -n '__alcrs_command_is salvage' -s n -l no-clobber \
    -d 'Keeps a file that is there under the name of OUT, and fails'
complete -c alcrs -n '__alcrs_command_is salvage' -s q -l quiet \
    -d 'Leaves out the sentences on standard error'
complete -c alcrs -n '__alcrs_command_is salvage' -s h -l help \
    -d 'Print help (see a summary with \'-h\')'

complete -c alcrs -n '__alcrs_command_is join' -l turns \
    -d 'One datagram of each session in turn, not one session after the other'
complete -c alcrs -n '__alcrs_command_is join' -s n -l no-clobber \
    -d 'Keeps a file that is there under the name of OUT, and fails'
complete -c alcrs -n '__alcrs_command_is join' -s q -l quiet \
    -d 'Leaves out the sentences on standard error'
complete -c alcrs -n '__alcrs_command_is join' -s h -l help \
    -d 'Print help (see a summary with \'-h\')'

complete -c alcrs -n '__alcrs_command_is decode' -l tsi -x \
    -d 'The transport session identifier (TSI), 0 to 4294967295'
complete -c alcrs -n '__alcrs_command_is decode' -l toi -x \
    -d 'The transport object identifier (TOI), 0 to 4294967295'
complete -c alcrs -n '__alcrs_command_is decode' -s n -l no-clobber \
    -d 'Keeps a file that is there under the name of OUT, and fails'
complete -c alcrs -n '__alcrs_command_is decode' -s q -l quiet \
    -d 'Leaves out the sentences on standard error'
complete -c alcrs -n '__alcrs_command_is decode' -s h -l help \
    -d 'Print help (see a summary with \'-h\')'

complete -c alcrs -n '__alcrs_command_is follow' -l tsi -x \
    -d 'The transport session identifier (TSI), 0 to 4294967295'
complete -c alcrs -n '__alcrs_command_is follow' -l toi -x \
    -d 'The transport object identifier (TOI), 0 to 4294967295'
complete -c alcrs -n '__alcrs_command_is follow' -s n -l no-clobber \
    -d 'Keeps a file that is there under the name of OUT, and fails'
complete -c alcrs -n '__alcrs_command_is follow' -s q -l quiet \
    -d 'Leaves out the sentences on standard error'
complete -c alcrs -n '__alcrs_command_is follow' -s h -l help \
    -d 'Print help (see a summary with \'-h\')'

complete -c alcrs -n '__alcrs_command_is twin' -l tsi -x \
    -d 'The transport session identifier (TSI), 0 to 4294967295'
complete -c alcrs -n '__alcrs_command_is twin' -l toi -x \
    -d 'The transport object identifier (TOI), 0 to 4294967295'
complete -c alcrs -n '__alcrs_command_is twin' -s n -l no-clobber \
    -d 'Keeps a file that is there under the name of OUT, and fails'
complete -c alcrs -n '__alcrs_command_is twin' -s q -l quiet \
    -d 'Leaves out the sentences on standard error'
complete -c alcrs -n '__alcrs_command_is twin' -s h -l help \
    -d 'Print help (see a summary with \'-h\')'

complete -c alcrs -n '__alcrs_command_is show' -l summary \
    -d 'Prints a few lines for each TSI and TOI, not one for each datagram'
complete -c alcrs -n '__alcrs_command_is show' -s q -l quiet \
    -d 'Leaves out the sentences on standard error'
complete -c alcrs -n '__alcrs_command_is show' -s h -l help \
    -d 'Print help (see a summary with \'-h\')'
