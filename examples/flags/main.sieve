require ["fileinto", "imap4flags", "variables"];

# What the spam filter marks is read and deleted, wherever it goes, unless a store names its own flags.
if header :contains "X-Spam-Flag" "yes" {
    setflag ["\\Seen", "\\Deleted"];
}

# Of the bosses' mail the words in brackets become keywords.
if address :is :domain "from" "board.example" {
    if header :matches "subject" "[*]*" {
        addflag "Topics" "${1}";
    }
    addflag "Topics" "\\Flagged";
    if hasflag :contains "topics" ["urgent", "asap"] {
        removeflag "Topics" "fyi";
        fileinto :flags "${topics}" "Board/Urgent";
    } else {
        fileinto :flags ["${topics}", "$Later"] "Board";
    }
}
