# Mail is sorted by the shape of its subject.
require "fileinto";

if header :matches "Subject" "[*] #???? *" {
    fileinto "Tickets";
} elsif header :matches "Subject" ["Re: *", "Re\\[?\\]: *"] {
    fileinto "Answers";
} elsif header :matches "Subject" "*\\**" {
    fileinto "Stars";
} elsif header :matches :comparator "i;octet" "Subject" "A*Z" {
    fileinto "A to Z";
}
