# refused 8 at 3: the place is that of the Styles.
text {opacity=0.5} "a"
