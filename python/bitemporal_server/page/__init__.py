"""A page for clerks and auditors: questions, answers with their witnesses, and tables as they were
believed at a moment."""
