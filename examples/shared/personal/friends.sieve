require ["include", "imap4flags"];
if address :is "from" "ada@home.example" {
    addflag "\\Flagged";
    include :global "lists";
}
