# Completions of `svid` for fish.

# lists:begin completion (written by tools/lists from lists/svid.toml)
# The command is the first word after `svid`, whatever stands after it.
function __svid_is
    set -l words (commandline -opc)
    contains -- "$words[2]" $argv
end

function __svid_begins
    test (count (commandline -opc)) = 1
end

set -l commands check id report merge summary answer candidates refusals help

complete -c svid -f
complete -c svid -s h -l help -d 'Print help'
complete -c svid -n __svid_begins -s V -l version -d 'print the version'
complete -c svid -n __svid_begins -a check -d 'Check each token on standard input, and print whether it is accepted or why not'
complete -c svid -n __svid_begins -a id -d 'Print the trust domain and path of a SPIFFE ID, or why a text is not one'
complete -c svid -n __svid_begins -a report -d 'Print the uses in the combined record, and the keys that were used twice'
complete -c svid -n __svid_begins -a merge -d 'Combine the records of all inputs, and write the result'
complete -c svid -n __svid_begins -a summary -d 'Write a summary of the combined record, for the answer of another validator'
complete -c svid -n __svid_begins -a answer -d 'Write what a validator lacks, as its summary tells: all uses of the buckets that differ'
complete -c svid -n __svid_begins -a candidates -d 'Print one question for each key that could have signed the token on standard input'
complete -c svid -n __svid_begins -a refusals -d 'Print why tokens are refused, in the order in which a check looks for it'
complete -c svid -n __svid_begins -a help -d 'Print this message or the help of the given subcommand(s)'
complete -c svid -n '__svid_is check' -l bundles -r -F -d 'A file of trust bundles, as JSON'
complete -c svid -n '__svid_is check' -l trust-domain -x -d 'The trust domain whose bundle the file of --bundles is, as SPIRE prints it; else it has the bundles of each by name'
complete -c svid -n '__svid_is check' -l table -r -F -d 'A file of the questions that your verifier answered with yes'
complete -c svid -n '__svid_is check' -l now -x -d 'The current time, in seconds since 1970'
complete -c svid -n '__svid_is check' -l validator-id -x -d 'The ID of this validator: 32 hexadecimal digits that no other validator has'
complete -c svid -n '__svid_is check' -l record -r -F -d 'A file of messages to begin with, such as an earlier --out; you may name several'
complete -c svid -n '__svid_is check' -l out -r -F -d 'The file to write the record to, after the last check'
complete -c svid -n '__svid_is check' -l longest -x -d 'Refuse a token that expires more than N seconds after --now, or after the record\'s clock if that is later'
complete -c svid -n '__svid_is check' -l explain -d 'Behind a fault line on standard error, say in words what is wrong and what to do'
complete -c svid -n '__svid_is id' -l explain -d 'Behind a fault line on standard error, say in words what is wrong and what to do'
complete -c svid -n '__svid_is report' -l now -x -d 'Advance the record\'s clock to N, in seconds since 1970, and drop what has expired by then'
complete -c svid -n '__svid_is report' -l explain -d 'Behind a fault line on standard error, say in words what is wrong and what to do'
complete -c svid -n '__svid_is report' -F
complete -c svid -n '__svid_is merge' -l now -x -d 'Advance the record\'s clock to N, in seconds since 1970, and drop what has expired by then'
complete -c svid -n '__svid_is merge' -l explain -d 'Behind a fault line on standard error, say in words what is wrong and what to do'
complete -c svid -n '__svid_is merge' -F
complete -c svid -n '__svid_is summary' -l explain -d 'Behind a fault line on standard error, say in words what is wrong and what to do'
complete -c svid -n '__svid_is summary' -F
complete -c svid -n '__svid_is answer' -l summary -r -F -d 'The file with the other validator\'s summary'
complete -c svid -n '__svid_is answer' -l explain -d 'Behind a fault line on standard error, say in words what is wrong and what to do'
complete -c svid -n '__svid_is answer' -F
complete -c svid -n '__svid_is candidates' -l bundles -r -F -d 'A file of trust bundles, as JSON'
complete -c svid -n '__svid_is candidates' -l trust-domain -x -d 'The trust domain whose bundle the file of --bundles is, as SPIRE prints it; else it has the bundles of each by name'
complete -c svid -n '__svid_is candidates' -l explain -d 'Behind a fault line on standard error, say in words what is wrong and what to do'
complete -c svid -n '__svid_is refusals' -l json -d 'Print a list of JSON objects with the members number, name and sentence'
complete -c svid -n '__svid_is refusals' -l explain -d 'Behind a fault line on standard error, say in words what is wrong and what to do'
complete -c svid -n '__svid_is help' -a "$commands"
# lists:end
