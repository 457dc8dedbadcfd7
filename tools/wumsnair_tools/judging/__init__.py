"""What ./judge does: it judges records by the fastest way that is there, reports verdicts, and finds smaller records."""
