# What the filter of spam says decides. A score below nothing has a sign in front, which no number of this comparator has: it would be
# the greatest of all.
require ["comparator-i;ascii-numeric", "fileinto", "imap4flags", "relational"];

if not exists "X-Spam-Score" {
    stop;
}
if header :matches "X-Spam-Score" "-*" {
    keep;
} elsif header :value "ge" :comparator "i;ascii-numeric" "X-Spam-Score" "15" {
    discard;
} elsif anyof (header :value "ge" :comparator "i;ascii-numeric" "X-Spam-Score" "5",
               header :count "gt" :comparator "i;ascii-numeric" ["Received"] "12") {
    fileinto :flags "\\Seen" "Junk";
}
