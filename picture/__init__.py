"""Pictures of a channel in SVG, drawn from what the proved programs answered."""
