"""Holds the proved programs to the model on seeded inputs."""
