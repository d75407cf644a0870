/* Empty: tools/from-toppers reads it where no folder of -I has it, and says so. */
