# The mail of sales@office.example.
require ["include", "fileinto", "envelope", "copy", "imap4flags"];
include :global "spam";

# Bounces have no sender.
if envelope "from" "" {
    fileinto "Bounces";
    stop;
}

# The books have a copy of each order, and it is filed with a keyword.
if header :contains "Subject" ["order", "Bestellung"] {
    redirect :copy "books@office.example";
    fileinto :flags "$Order" "Orders";
    stop;
}
include "colleagues";
