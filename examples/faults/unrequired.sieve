keep;
fileinto "Archive";
