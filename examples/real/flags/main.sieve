# Flags by who writes, and what they are used for.
require ["fileinto", "imap4flags", "variables"];

if address :domain "From" ["office.example", "partner.example"] {
    addflag ["\\Flagged", "$Work"];
}
if header :contains "Subject" ["fyi", "for your information"] {
    addflag "\\Seen";
    removeflag "\\Flagged";
}
if hasflag :contains "$Work" {
    setflag "later" "$Later";
    fileinto :flags ["${later}", "$Work"] "Work";
}
