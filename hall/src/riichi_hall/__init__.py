"""A hall of tables that hand in their deals by phone: what is decided is the proved library's, what is kept lies on the disk."""
