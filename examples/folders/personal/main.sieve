# An older filter of the same name: the script that is named on the command line stands in its place.
kep;
