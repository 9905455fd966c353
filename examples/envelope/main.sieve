# What the envelope says decides, whatever the header says.
require ["envelope", "fileinto"];

# Bounces have no sender.
if envelope :domain "from" "" {
    fileinto "Bounces";
} elsif envelope "to" ["sales@example.org", "offers@example.org"] {
    fileinto "Sales";
}
