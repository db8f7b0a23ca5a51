"""What the scripts of this folder share: a reader of modules and names, the way to ask the program, its texts, and the pages."""
