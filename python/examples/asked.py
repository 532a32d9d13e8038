from pertxogai.program import Program
from pertxogai.program.reports import Solved, read_answer

words, text = ["solve"], open("examples/triangle.sketch").read()
answer = Program.find().ask(words, text)
report = read_answer(words, answer)
print(answer.status.name, report.place("C") if isinstance(report, Solved) else report)
