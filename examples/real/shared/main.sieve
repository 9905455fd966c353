# What comes to the address of sales is for all of them. Who answers an order finds it in the archive too.
require ["copy", "envelope", "fileinto", "imap4flags", "mailbox", "special-use"];

if anyof (envelope :all "to" "sales@office.example",
          address :all ["To", "Cc"] "sales@office.example") {
    if mailboxexists "Shared/Sales" {
        fileinto :flags ["$Sales", "\\Flagged"] "Shared/Sales";
    } else {
        fileinto :create "Sales";
    }
    if header :contains "Subject" "order" {
        fileinto :copy :specialuse "\\Archive" "Archive";
    }
}
