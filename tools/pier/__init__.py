"""What run/send, run/board, run/pier and run/pier-noise share: around the proved programs send and show, nothing of the radio is worked out here."""
