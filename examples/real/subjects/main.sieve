# Subjects in words that were encoded, whatever their charset is. The sign of the euro is written by its number.
require ["encoded-character", "fileinto"];

if header :contains "Subject" "${unicode:20AC}" {
    fileinto "Invoices";
} elsif header :contains "Subject" ["Grüße", "${hex: d0 bf d1 80 d0 b8 d0 b2 d0 b5 d1 82}"] {
    fileinto "Friends";
}
