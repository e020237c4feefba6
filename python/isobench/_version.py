"""The version of the package. Its first number is that of the program that it runs."""
VERSION = "1.0.0"
