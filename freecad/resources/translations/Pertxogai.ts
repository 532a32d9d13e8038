<?xml version="1.0" encoding="utf-8"?>
<!DOCTYPE TS>
<TS version="2.1">
 <context>
  <name>Pertxogai</name>
  <message>
   <source>nothing is redundant</source>
   <translation type="unfinished" />
  </message>
  <message>
   <source>the program finds nothing redundant; the rank wasn't counted</source>
   <translation type="unfinished" />
  </message>
  <message>
   <source>the sketch was changed since: judge it again</source>
   <translation type="unfinished" />
  </message>
  <message>
   <source>Judge</source>
   <translation type="unfinished" />
  </message>
  <message>
   <source>Repair</source>
   <translation type="unfinished" />
  </message>
  <message>
   <source>Complete</source>
   <translation type="unfinished" />
  </message>
  <message>
   <source>Range</source>
   <translation type="unfinished" />
  </message>
  <message>
   <source>Certify</source>
   <translation type="unfinished" />
  </message>
  <message>
   <source>Construction</source>
   <translation type="unfinished" />
  </message>
  <message>
   <source>Tells whether the sketch is fully constrained, and how far each constraint is off</source>
   <translation type="unfinished" />
  </message>
  <message>
   <source>Lists the constraints that are redundant or conflict, and removes one</source>
   <translation type="unfinished" />
  </message>
  <message>
   <source>Proposes the dimensions that the sketch lacks, and adds them</source>
   <translation type="unfinished" />
  </message>
  <message>
   <source>Tells how far the selected dimension may go</source>
   <translation type="unfinished" />
  </message>
  <message>
   <source>Writes a claim that others can check beside the document</source>
   <translation type="unfinished" />
  </message>
  <message>
   <source>Shows the steps of the construction over the sketch</source>
   <translation type="unfinished" />
  </message>
  <message>
   <source>Add the selected dimension</source>
   <translation type="unfinished" />
  </message>
  <message>
   <source>Add all</source>
   <translation type="unfinished" />
  </message>
  <message>
   <source>Dimension to add</source>
   <translation type="unfinished" />
  </message>
  <message>
   <source>Fixes (by numbers)</source>
   <translation type="unfinished" />
  </message>
  <message>
   <source>Play</source>
   <translation type="unfinished" />
  </message>
  <message>
   <source>Pause</source>
   <translation type="unfinished" />
  </message>
  <message>
   <source>Place</source>
   <translation type="unfinished" />
  </message>
  <message>
   <source>Colour the clusters</source>
   <translation type="unfinished" />
  </message>
  <message>
   <source>while the sketch is edited FreeCAD shows its own colours: close it first</source>
   <translation type="unfinished" />
  </message>
  <message>
   <source>Constraint</source>
   <translation type="unfinished" />
  </message>
  <message>
   <source>Standing</source>
   <translation type="unfinished" />
  </message>
  <message>
   <source>Off by</source>
   <translation type="unfinished" />
  </message>
  <message>
   <source>Says</source>
   <translation type="unfinished" />
  </message>
  <message>
   <source>good: all of it holds within the limit</source>
   <translation type="unfinished" />
  </message>
  <message>
   <source>asking the program ..</source>
   <translation type="unfinished" />
  </message>
  <message>
   <source>this is a fault of the add-on: FreeCAD's report view has the details</source>
   <translation type="unfinished" />
  </message>
  <message>
   <source>Remove the selected constraint</source>
   <translation type="unfinished" />
  </message>
  <message>
   <source>Removable</source>
   <translation type="unfinished" />
  </message>
  <message>
   <source>It is</source>
   <translation type="unfinished" />
  </message>
  <message>
   <source>The rest is then</source>
   <translation type="unfinished" />
  </message>
  <message>
   <source>Asks the proved program about sketches: what is redundant, what is missing, how far it is off</source>
   <translation type="unfinished" />
  </message>
 </context>
 <context>
  <name>PertxogaiPreferences</name>
  <message>
   <source>General</source>
   <translation type="unfinished" />
  </message>
  <message>
   <source>Folder of the Python package pertxogai</source>
   <translation type="unfinished" />
  </message>
  <message>
   <source>Empty: the one of the add-on, or the installed one</source>
   <translation type="unfinished" />
  </message>
  <message>
   <source>Program sketch</source>
   <translation type="unfinished" />
  </message>
  <message>
   <source>Empty: the one of the add-on, that PERTXOGAI_SKETCH names, or the installed one</source>
   <translation type="unfinished" />
  </message>
  <message>
   <source>Holds within (nm, and ppb of an angle)</source>
   <translation type="unfinished" />
  </message>
  <message>
   <source>What is met within so many nanometres, or an angle within so many ppb, holds</source>
   <translation type="unfinished" />
  </message>
  <message>
   <source>Seconds for each call of the program</source>
   <translation type="unfinished" />
  </message>
  <message>
   <source>A call that takes longer is stopped</source>
   <translation type="unfinished" />
  </message>
 </context>
</TS>
