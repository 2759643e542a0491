# A text.
echo one >text
