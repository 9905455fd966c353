# Mail of a list goes to a box of its own, by the list's name.
require ["fileinto", "variables"];
if header :matches "List-Id" "*<*.lists.example>*" {
    set :upperfirst "list" "${2}";
    fileinto "Lists/${list}";
    stop;
}
