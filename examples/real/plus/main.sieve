# Mail to ada+word goes to a mailbox of that word, which is made where it lacks. What shops were told is kept apart.
require ["envelope", "fileinto", "mailbox", "subaddress", "variables"];

if envelope :detail :is "to" ["shop", "orders"] {
    fileinto :create "Shops";
} elsif envelope :detail :matches "to" "?*" {
    set :lower :upperfirst "box" "${1}${2}";
    fileinto :create "Plus/${box}";
}
