# The site's own rule against spam.
require "fileinto";
if header :contains "X-Spam-Flag" "YES" {
    fileinto "Junk";
}
