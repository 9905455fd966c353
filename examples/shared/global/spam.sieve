# The site's rule against spam: what it files is settled, so it ends the run.
require "fileinto";
if header :contains "X-Spam-Flag" "yes" {
    fileinto "Junk";
    stop;
}
