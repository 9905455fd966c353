# What is too large or is forbidden goes back with a reason, and what a machine sent is refused without one that it wouldn't read.
require ["ereject", "reject"];

if size :over 1K {
    reject text:
Your mail is larger than a thousand octets.
Please send a link.
.
;
} elsif address :is :domain "From" "pirates.example" {
    ereject "This address takes no mail from pirates.example.";
}
