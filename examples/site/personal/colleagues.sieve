# What colleagues write is flagged; where it is urgent, the pager has it too.
require ["copy", "imap4flags"];
if address :domain "From" "office.example" {
    addflag "\\Flagged";
    if header :contains "Subject" "urgent" {
        redirect :copy "pager@phone.example";
    }
}
