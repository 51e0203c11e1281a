"""What is printed of sources into documents, and what documents are checked for."""
