# As a web mailer writes it: what it knows is required, used or not, and each rule has a name.
require ["body", "copy", "date", "duplicate", "envelope", "fileinto", "imap4flags", "mailbox", "regex", "reject", "relational", "subaddress", "vacation", "variables"];
# rule:[Newsletters]
if anyof (header :contains "list-unsubscribe" ["http", "mailto"], body :text :contains ["unsubscribe", "newsletter kündigen"])
{
	fileinto :create "Newsletters";
	stop;
}
# rule:[Invitations]
if body :content "text/calendar" :contains "METHOD:REQUEST"
{
	addflag "$Calendar";
	fileinto "Calendar";
	stop;
}
# rule:[Programs]
if allof (not address :domain :is "from" "office.example", body :raw :matches ["*name=*.exe*", "*name=*.js*"])
{
	fileinto "Quarantine";
	stop;
}
