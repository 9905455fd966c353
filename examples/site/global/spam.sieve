# What the spam filter marks is filed, and that is all.
require "fileinto";
if header :contains "X-Spam-Flag" "YES" {
    fileinto "Junk";
    stop;
}
