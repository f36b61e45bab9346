"""The program's rules, read a second time: plain functions over bytes, in no hurry."""
