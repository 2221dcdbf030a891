"""The front door: a project file, circuits, formulas and pictures in front of the four proved programs."""
