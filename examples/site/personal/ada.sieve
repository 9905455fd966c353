# Ada's mail. The site's rules come first; they may end the run.
require ["include", "fileinto"];
include :global "spam";
include :global "lists";
include "colleagues";

# There is such a script only while she is away.
include :optional "away";

if header :contains "Subject" "Quittung" {
    fileinto "Büro/Belege";
}
