"""What the tools of distfuture share: reports, versions, Packages files, and how the program is run."""
