# The site's lists, each in a box of its own below the one that the including script names.
require ["fileinto", "include", "variables"];
global "lists";
if not header :matches "List-Id" "*<*.lists.example>*" {
    return;
}
fileinto "${lists}/${2}";
