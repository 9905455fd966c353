# A mailbox for each list, by its name, and none for what came before.
require ["duplicate", "fileinto", "mailbox", "variables"];

if duplicate :header "Message-Id" :seconds 86400 {
    discard;
    stop;
}
if header :matches "List-Id" "*<*.*>" {
    set :lower "list" "${2}";
    if mailboxexists "Lists/${list}" {
        fileinto "Lists/${list}";
    } else {
        fileinto :create "Lists/New";
    }
    stop;
}
if header :contains ["List-Post", "List-Help", "Mailing-List"] "" {
    fileinto "Lists/Other";
}
