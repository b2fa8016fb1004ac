# nothing

   # at all
	
#