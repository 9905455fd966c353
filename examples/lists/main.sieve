# Spam goes to Junk, and mail of lists to folders of its own.
require ["fileinto", "envelope"];

# The provider marks what it takes for spam.
if header :contains "X-Spam-Flag" "yes" {
    fileinto "Junk";
    stop;
}

# This list is known by its id, and by the address that its mail comes from.
if anyof (header :contains "List-Id" "<sieve.lists.example>",
          envelope :localpart "from" "sieve-bounces") {
    fileinto "Lists/sieve";
} elsif header :matches "List-Id" "*<*.lists.example>" {
    fileinto "Lists";
}
