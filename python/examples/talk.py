from pertxogai.language import Ask, Distance, Point, SetLength
from pertxogai.program import Program
from pertxogai.program.live import LiveProgram

with LiveProgram.start(Program.find()) as talk:
    for line in Point("A", 0, 0), Point("B", 40_000, 0), Distance("A", "B", 40_000):
        print(talk.say(line).name)
    print(talk.say(Ask.CHECK).verdict.value)
    talk.say(SetLength(1, 50_000))
    print(talk.say(Ask.SOLVE).place("B"))
    print(talk.say("distance A C 30"))
